"""Several pages in one browser: each shows what was so when it was looked at, and its form is sent later."""


def several(trial, asks, between, signs_out):
    """Looks at the page of each form; then the others' asks are made, and the forms are sent after them. What a
    form asks for is decided by what is so when it is sent. Who signs out in one tab is signed out in the others."""
    hidden = [trial.form_page(it) for it in asks]
    for ask in between:
        trial.one(ask)
    by = asks[0].by
    if signs_out and trial.browser.stands(by):
        trial.browser.sign_out(by)
        trial.browser.post_signed_out(asks[0], hidden[0])
    for ask, fields in zip(asks, hidden):
        trial.sent(ask, fields)
    trial.figures.faults["forms sent from pages of before"] += len(asks)
