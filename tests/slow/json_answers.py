"""What a rehearsal answers, as JSON."""

from answers import HELP
from json_form import answer, batches_of, end, told, written
from rules import turned


class Objects:
    """How answers are told: each as one object on one line."""

    def _line(self, reply, **members):
        return [written({"reply": reply, **members}).removesuffix("\n")]

    def refused(self, fault):
        return self._line("refused", **told(fault)["fault"])

    def advanced(self, batches):
        if turned("form-advances-in-one-object"):
            return [line for batch in batches for line in self._line("advanced", batches=[batch])]
        return self._line("advanced", batches=batches)

    def marked(self, host):
        return self._line("marked", host=host)

    def undone(self, is_done):
        return self._line("undone" if is_done else "nothing-to-undo")

    def plan(self, found):
        return self._line("plan", answer=answer(found), batches=batches_of(found))

    def show(self, hosts, ended):
        ends = {} if not ended and turned("form-plays-that-go-on-have-null") else {"end": ended and end(ended)}
        return self._line("show", hosts=[{"host": host, "state": state} for host, state in hosts], **ends)

    def hosts(self, hosts):
        return self._line("hosts", hosts=[self._member(*host) for host in hosts])

    def _member(self, host, state, number):
        batch = {} if number is None and turned("form-hosts-in-no-batch-have-null") else {"batch": number}
        return {"host": host, "state": state, **batch}

    def help(self):
        return self._line("help", commands=[{"command": line[:15].strip(), "does": line[15:]} for line in HELP.splitlines()])
