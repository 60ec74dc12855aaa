* one-plan.txt in fixed MPS
NAME          ONE-PLAN
ROWS
 N  cost
 L  cap
COLUMNS
    MARK0     'MARKER'                 'INTORG'
    x         cost             27907   cap                 -2
    y         cost             12572   cap              32767
    z         cost             24241   cap              32767
    MARK1     'MARKER'                 'INTEND'
RHS
    RHS       cap        68715216898
BOUNDS
 LO BND       x              1048575
 UP BND       x              1048576
 FX BND       y              1048576
 LO BND       z              1048574
 UP BND       z              1048576
ENDATA
