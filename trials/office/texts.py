"""What people write, and hostile texts for each field."""

THINGS = ["printer", "door", "laptop", "invoice", "projector", "badge", "heating", "mail", "chair", "monitor",
          "licence", "coffee machine", "network share", "keyboard", "lamp", "payslip", "contract", "window"]
TROUBLES = ["is jammed", "doesn't open", "is lost", "is too slow", "has to be ordered", "was moved", "is broken",
            "shows an error", "needs a new part", "is out of toner", "hums", "Straße & Öl", "印刷できない"]
WORDS = ["on my way", "which one?", "the one on the second floor", "I have ordered it", "please try again",
         "it works now, thank you", "still broken", "Monday at ten", "see the other request", "done",
         "I was away; is it still so?", "the part comes next week", "ask the lead first"]
# texts that break what isn't careful: markup, quotes, escapes, directions, ends, lengths, signs
HOSTILE = [
    "<script>alert(1)</script>", "</textarea></form><b>x", "\"><img src=x onerror=alert(1)>", "' OR 1=1 --",
    "'); DROP TABLE request; --", "%s%n%00", "a\\b\\n", "-5 degrees", "--status=open", "é\u0301\u202eabc\u2066",
    "\U0001f4a5\U0001f469\u200d\U0001f4bb", "{}[]$(id)`id`", "&lt;&amp;&#39;", "\ufeffmark", "x" * 200, "ß" * 200,
    "\u2028\u2029", "&next=//evil.example", "Set-Cookie: desk=x", "  spaces  ", "+1+2%20", "0", "NaN"]
# those that are refused where a subject stands, and some of them where a text does
REFUSED = ["", "x" * 201, "a\tb", "two\nlines", "\x1b[31m", "\x7f", "a\x00b", "\x08", "carriage\rreturn"]
LONG = ["z" * 20_000, "漢" * 20_000, "y" * 20_001, "\n" * 100, "line\n" * 300, "\ttabs\t"]
STRANGERS = ["nobody-here", "Root", "no body", "", "x" * 21, "helpers", "ä"]


def subject(choose, number):
    if choose.random() < 0.04:
        return choose.choice(HOSTILE + REFUSED)
    return f"{choose.choice(THINGS)} {choose.choice(TROUBLES)} {number}"


def text(choose):
    lot = choose.random()
    if lot < 0.04:
        return choose.choice(HOSTILE + REFUSED)
    if lot < 0.05:
        return choose.choice(LONG)
    return "\n".join(choose.sample(WORDS, choose.randint(1, 3)))
