"""Messages that ask for nothing, and what each is answered by docs/http.md and docs/pages.md: its code and
what its text begins with."""
from typing import NamedTuple

import sessions

from office.ways import reply_to

KINDS = []


class Sender(NamedTuple):
    """Who sends, by which token, and at which minute."""
    person: str
    token: str
    at: int


def kind(code, begins):
    def put(make):
        KINDS.append((make, code, begins))
        return make
    return put


def head(line, *lines):
    return "".join(f"{it}\r\n" for it in (f"{line} HTTP/1.1", "Host: 127.0.0.1", *lines)).encode() + b"\r\n"


def body(line, text, *lines):
    return head(line, *lines, f"Content-Length: {len(text)}") + text


@kind(403, "refused 1 UnknownCaller\n")
def no_token(_):
    return head("GET /queues")


@kind(403, "refused 1 UnknownCaller\n")
def wrong_token(_):
    return head("GET /overdue", "Desk-Token: 0123456789abcdef-no-such")


@kind(403, "refused 1 UnknownCaller\n")
def two_tokens(who):
    return head("GET /queues", f"Desk-Token: {who.token}", f"Desk-Token: {who.token}")


@kind(404, "bad request 1 NoRoute\n")
def no_path(who):
    return head("GET /requests/1/nothing", f"Desk-Token: {who.token}")


@kind(404, "bad request 1 NoRoute\n")
def no_number(who):
    return head("GET /requests/00000000001", f"Desk-Token: {who.token}")


@kind(405, "bad request 2 BadMethod\n")
def no_method(who):
    return head("DELETE /requests/1", f"Desk-Token: {who.token}")


@kind(400, "bad request 4 BadBody\n")
def no_object(who):
    return body("POST /requests/1/reply", b"text=hello", f"Desk-Token: {who.token}")


@kind(400, "bad request 4 BadBody\n")
def unknown_key(who):
    return body("POST /requests/1/comment", b'{"text":"x","at":1}', f"Desk-Token: {who.token}")


@kind(400, "bad request 4 BadBody\n")
def no_text(who):
    return body("POST /requests/1/comment", b'{"text":"\xff"}', f"Desk-Token: {who.token}")


@kind(400, "bad message 1 TooLong\n")
def too_long(who):
    return head("POST /requests/1/reply", f"Desk-Token: {who.token}", "Content-Length: 65537")


@kind(400, "bad message 4 BadLength\n")
def chunked(who):
    return head("POST /requests/1/take", f"Desk-Token: {who.token}", "Transfer-Encoding: chunked")


@kind(400, "bad message 3 BadHead\n")
def many_lines(who):
    return head("GET /queues", *[f"X-{it}: y" for it in range(40)], f"Desk-Token: {who.token}")


@kind(403, "<!DOCTYPE html>")
def nobodys_cookie(_):
    return head("GET /desk/workload", "Cookie: desk=0123456789abcdef-no-such")


@kind(403, "<!DOCTYPE html>")
def other_site(_):
    return body("POST /desk/requests/1/take", b"", "Sec-Fetch-Site: cross-site", "Origin: http://evil.example")


@kind(404, "<!DOCTYPE html>")
def no_page(_):
    return head("GET /desk/nothing")


@kind(403, "<!DOCTYPE html>")
def wrong_sign_in(_):
    return body("POST /sign-in", b"token=0123456789abcdef-no&next=/", "Sec-Fetch-Site: same-origin")


# ---- what HTTP asks of a server

@kind(400, "bad message 3 BadHead\n")
def no_host(who):
    return f"GET /queues HTTP/1.1\r\nDesk-Token: {who.token}\r\n\r\n".encode()


@kind(400, "bad message 3 BadHead\n")
def two_hosts(who):
    return head("GET /queues", "Host: desk.example.org", f"Desk-Token: {who.token}")


@kind(417, "expectation failed\n")
def expects(who):
    return head("POST /requests/1/take", f"Desk-Token: {who.token}", "Expect: 100-continue", "Content-Length: 2")


@kind(200, "queue ")
def whole_address(who):
    return head("GET http://desk.example.org/queues", f"Desk-Token: {who.token}")


# ---- cookies

def by_cookie(cookie):
    return head("GET /desk/workload", f"Cookie: desk={cookie}")


@kind(403, "refused 1 UnknownCaller\n")
def cookie_of_no_program(who):
    cookie = sessions.cookie_of(who.token, who.person, who.at + sessions.DAY)
    return head("GET /queues", f"Cookie: desk={cookie}")


@kind(403, "<!DOCTYPE html>")
def token_as_a_cookie(who):
    return by_cookie(who.token)


@kind(403, "<!DOCTYPE html>")
def ended(who):
    return by_cookie(sessions.cookie_of(who.token, who.person, who.at))


@kind(403, "<!DOCTYPE html>")
def form_of_one_whose_session_ended(who):
    cookie = sessions.cookie_of(who.token, who.person, who.at)
    return body("POST /desk/requests/1/comment", b"text=too+late", f"Cookie: desk={cookie}",
                "Sec-Fetch-Site: same-origin")


@kind(200, "<!DOCTYPE html>")
def in_its_last_minute(who):
    return by_cookie(sessions.cookie_of(who.token, who.person, who.at + 1))


@kind(200, "<!DOCTYPE html>")
def of_this_minute(who):
    return by_cookie(sessions.cookie_of(who.token, who.person, who.at + sessions.MONTH))


@kind(403, "<!DOCTYPE html>")
def of_minutes_to_come(who):
    return by_cookie(sessions.cookie_of(who.token, who.person, who.at + sessions.MONTH + 2))


@kind(403, "<!DOCTYPE html>")
def later_end(who):
    cookie = sessions.cookie_of(who.token, who.person, who.at)
    return by_cookie(cookie.replace(str(who.at), str(who.at + 1)))


def try_one(port, who, number):
    """What is wrong with the answer to one of them, or None."""
    make, code, begins = KINDS[number % len(KINDS)]
    reply = reply_to(port, make(who))
    first, _, text = reply.partition(b"\r\n\r\n")
    if first[9:12] == str(code).encode() and text.startswith(begins.encode()):
        return None
    return f"{make.__name__}: {reply[:200]!r} in place of {code} {begins!r}"
