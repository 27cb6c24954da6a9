"""Sessions of browsers, told once more from docs/pages.md: the cookie of a token, and for whom a cookie stands."""
import hmac

# How long a session lasts, in minutes.
DAY, MONTH = 720, 43200


def cookie_of(token, person, ends):
    """`PERSON.EXPIRES.MAC` by a token of the person."""
    named = f"{person}.{ends}"
    mac = hmac.new(token.encode(), f"desk session\n{named}".encode(), "sha256")
    return f"{named}.{mac.hexdigest()}"


def signed_in(tokens, typed, moment, lasts):
    """The cookie of one who signs in, or None. `tokens` has the person of each."""
    return cookie_of(typed, tokens[typed], moment + lasts) if typed in tokens else None


def caller_of(tokens, cookie, now):
    """The person for whom a cookie stands at a minute, or None."""
    for token, person in tokens.items():
        ends = cookie.removeprefix(f"{person}.").partition(".")[0]
        if ends.isascii() and ends.isdigit() and now < int(ends) <= now + MONTH and cookie == cookie_of(token, person, int(ends)):
            return person
    return None
