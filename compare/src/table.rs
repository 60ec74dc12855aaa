// Tables of things that can happen: how often each did, and in how many models.

// A name, and what counts the thing in a model.
pub type Event<F> = (&'static str, F);

#[derive(Clone)]
pub struct Table<F: 'static> {
    title: &'static str,
    events: &'static [Event<F>],
    // times, and models
    sums: Vec<(u64, u64)>,
}

impl<F> Table<F> {
    pub fn new(title: &'static str, events: &'static [Event<F>]) -> Self {
        Table { title, events, sums: vec![(0, 0); events.len()] }
    }
    // One model more.
    pub fn model(&mut self, times: impl Fn(&F) -> u64) {
        for (event, sum) in self.events.iter().zip(&mut self.sums) {
            let n = times(&event.1);
            sum.0 += n;
            sum.1 += (n > 0) as u64;
        }
    }
    // Whether something happened that had happened in fewer than `few` models in the table as it was.
    pub fn rarer(&self, was: &Self, few: u64) -> bool {
        was.sums.iter().zip(&self.sums).any(|(o, n)| o.1 < few && n.1 > o.1)
    }
    pub fn never(&self) -> impl Iterator<Item = &'static str> + '_ {
        self.events.iter().zip(&self.sums).filter(|(_, s)| s.0 == 0).map(|(e, _)| e.0)
    }
    pub fn text(&self) -> String {
        let mut s = format!("| {} | times | models |\n|---|---|---|\n", self.title);
        for (e, n) in self.events.iter().zip(&self.sums) {
            s += &format!("| {} | {} | {} |\n", e.0, thousands(n.0), thousands(n.1));
        }
        s + "\n"
    }
}

pub fn thousands(n: u64) -> String {
    let d = n.to_string();
    let mut s = String::new();
    for (i, c) in d.chars().enumerate() {
        if i > 0 && (d.len() - i) % 3 == 0 {
            s.push(',');
        }
        s.push(c);
    }
    s
}
