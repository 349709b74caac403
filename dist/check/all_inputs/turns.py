"""Long keys in little memory: the standard runs in a second thread, some steps after the code. Atoms that both have
passed are forgotten. Only one of the two threads runs at a time."""

import threading

import terms
from terms import Known

AHEAD, BEHIND = 8192, 4096  # atoms, of which a block has at most 224


class Turns:
    def __init__(self, function, *args):
        self.code_front = self.standard_front = self.forgotten = 0
        self.has_ended = self.is_given_up = False
        self.answer = self.fault = None
        self.to_code = threading.Semaphore(0)
        self.to_standard = threading.Semaphore(0)
        self.standard = threading.Thread(
            target=self.run, args=(function, *args), daemon=True
        )
        terms.turns = self
        self.standard.start()

    def run(self, function, *args):
        self.to_standard.acquire()
        try:
            self.answer = function(*args)
        except BaseException as fault:  # raised again where the result is asked for
            self.fault = fault
        self.has_ended = True
        self.to_code.release()

    def is_standard(self):
        return threading.current_thread() is self.standard

    def wait(self):
        """Called before a new atom is made: the standard first lets the code make it."""
        if self.is_standard() and terms.turns is self:
            self.to_code.release()
            self.to_standard.acquire()
            if self.is_given_up:
                raise SystemExit

    def met(self, atom):
        """Called at each S and T."""
        if self.is_standard():
            self.standard_front = max(self.standard_front, atom)
            return
        self.code_front = max(self.code_front, atom)
        if self.code_front > self.standard_front + AHEAD and not self.has_ended:
            self.forgotten = self.forgotten or atom
            self.let_standard_run()
            end = self.standard_front - BEHIND
            if end > self.forgotten:
                terms.forget_between(self.forgotten, end)
                self.forgotten = end

    def let_standard_run(self):
        """The standard is true on every path, so it runs without what is known on one."""
        known, Known.now = Known.now, Known()
        self.to_standard.release()
        self.to_code.acquire()
        Known.now = known

    def result(self):
        """Returns what the standard computes, after the code has ended."""
        if not self.has_ended:
            terms.turns = None
            self.let_standard_run()
        if self.fault:
            raise self.fault
        return self.answer

    def give_up(self):
        terms.turns = None
        self.is_given_up = True
        self.to_standard.release()
