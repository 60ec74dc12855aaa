"""Runs the built programs on a model file."""
import os
import subprocess

import model


class NoAnswer(Exception):
    """The program ended without an answer."""


class Program:
    def __init__(self, words):
        self.words, self.calls = words, 0

    def text(self, data):
        """The printed result, as it is."""
        self.calls += 1
        return self.printed(self.words, data)

    def facts(self, m):
        """What presolve_facts prints, where it stands beside the program; else None."""
        beside = self.beside("presolve_facts")
        return self.printed(self.words[:-1] + [beside], model.write_file(m)) if os.path.exists(beside) else None

    def check(self, m):
        """What presolve_plan prints of a model whose objective is a plan."""
        return self.printed(self.words[:-1] + [self.beside("presolve_plan")], model.write_file(m))

    def beside(self, name):
        return os.path.join(os.path.dirname(self.words[-1]), name)

    @staticmethod
    def printed(words, data):
        try:
            done = subprocess.run(words, input=data, stdout=subprocess.PIPE, check=False)
        except OSError as error:
            raise NoAnswer("%s: %s" % (words[-1], error)) from None
        if done.returncode:
            raise NoAnswer("the program ended with status %d" % done.returncode)
        return done.stdout.decode("ascii", "replace")

    def answer(self, m):
        return model.read_answer(self.text(model.write_file(m)))
