"""The office of the trial: who is there, what they may do, what was filed in the days before."""
import time

TOKENS = {name: f"browser-{name}-0000000" for name in ("ann", "bob", "cid", "dora", "eva", "lin")}

SETTINGS = """persons = ["ann", "ben", "bob", "cid", "dora", "eva", "lin", "yuri"]

[groups]
helpers = ["bob", "cid"]
heads = ["eva"]
staff = ["helpers", "heads"]

[[grant]]
to = "person:dora"
rights = ["SuperUser"]

[[grant]]
to = "everyone"
rights = ["SeeQueue", "CreateTicket"]

[[grant]]
to = "role:requestor"
rights = ["ShowTicket", "ReplyToTicket"]

[[grant]]
to = "group:helpers"
queue = "support"
rights = ["ShowTicket", "ShowTicketComments", "ModifyTicket", "ReplyToTicket", "CommentOnTicket",
  "OwnTicket", "TakeTicket", "StealTicket", "ReassignTicket"]

[[grant]]
to = "group:staff"
queue = "purchases"
rights = ["ShowTicket", "ShowTicketComments", "ModifyTicket", "CommentOnTicket", "ReplyToTicket",
  "OwnTicket", "TakeTicket"]

[[grant]]
to = "group:heads"
queue = "purchases"
rights = ["ApprovePurchase"]

[lifecycle.purchase]
initial = ["asked"]
active = ["approved", "ordered"]
inactive = ["delivered", "declined"]
create = ["asked"]
on_create = "asked"

[lifecycle.purchase.transitions]
asked = ["approved", "declined"]
approved = ["ordered", "declined"]
ordered = ["delivered"]
declined = ["asked"]

[lifecycle.purchase.rights]
"asked -> approved" = "ApprovePurchase"
"* -> declined" = "ApprovePurchase"

[calendar.office]
years = [2020, 2090]
rule = "CET-1CEST,M3.5.0,M10.5.0/3"
sun = ["00:00-24:00"]
mon = ["00:00-24:00"]
tue = ["00:00-24:00"]
wed = ["00:00-24:00"]
thu = ["00:00-24:00"]
fri = ["00:00-24:00"]
sat = ["00:00-24:00"]

[level.standard]
calendar = "office"
ignore = ["stalled", "ordered"]
response = { real_minutes = 2000 }
keep_in_loop = { real_minutes = 6000 }
resolve = { real_minutes = 20000 }

[level.urgent]
calendar = "office"
response = { real_minutes = 60 }
keep_in_loop = { real_minutes = 600 }
resolve = { real_minutes = 800 }

[tokens]
""" + "".join(f'{token} = "{name}"\n' for name, token in TOKENS.items())

LONG = ("The printer on the second floor, near the kitchen, prints the first page of each document "
        "twice, leaves out the last one, and says “Load A4 (plain)” although there is a full tray, "
        "since Tuesday, noon.")
TRICK = "<script>alert(\"1\")</script> in a subject & 'quotes' </title></textarea>"
UNBROKEN = "https://intranet.example.org/forms/travel/" + "approval-of-a-journey-abroad-" * 5 + "v2"
TRIED = ("It’s the one beside the kitchen. What I tried:\n\n\t1.\tswitched it off and on\n"
         "\t2.\tloaded new paper (\"plain\", 80 g)\n\nIt always says:\n\n"
         "\tif (tray < 1 && paper > 0) { goto \"Load A4 (plain)\"; }\n\nNo hurry before Friday.")
# hours before now, and the command. The late ones are 1 (nobody's), 2 (bob's) and 4 (cid's)
BEFORE = [
    (200, "dora", "queue", "support", "default", "standard"),
    (200, "dora", "queue", "purchases", "purchase"),
    (199, "dora", "queue", "building", "default"),
    (90, "ann", "create", "support", LONG),
    (80, "ann", "create", "support", "Nobody on the third floor can sign in"),
    (79, "bob", "level", "2", "urgent"),
    (79, "bob", "take", "2"),
    (78, "yuri", "create", "support", "Не открывается общая папка «Отчёты»"),
    (77, "cid", "take", "3"),
    (77, "cid", "correspond", "3", "Попробуйте ещё раз, пожалуйста: права обновились ночью."),
    (76, "ben", "create", "support", TRICK),
    (75, "cid", "take", "4"),
    (74, "lin", "create", "support", "会議室のプロジェクターが二階だけ映りません（HDMIケーブルは交換済み）"),
    (73, "bob", "correspond", "5", "どの部屋ですか。"),
    (72, "ben", "create", "support", "Mail from the old address doesn’t arrive any more"),
    (71, "cid", "take", "6"),
    (70, "cid", "correspond", "6", "The forwarding had run out. It’s back."),
    (69, "ben", "correspond", "6", "Works, thank you!"),
    (68, "cid", "status", "6", "resolved"),
    (67, "ann", "create", "support", "A second screen for the front desk"),
    (66, "bob", "take", "7"),
    (65, "bob", "correspond", "7", "It comes with the next delivery. I let this wait till then."),
    (64, "bob", "status", "7", "stalled"),
    (30, "lin", "create", "support", UNBROKEN),
    (29, "bob", "create", "purchases", "A new fuser for the printer on the second floor"),
    (28, "eva", "status", "9", "approved"),
    (27, "ben", "create", "purchases", "An espresso machine for room 12"),
    (26, "eva", "status", "10", "declined"),
    (25, "ann", "create", "support", "The printer on the second floor is jammed again"),
    (24, "ann", "correspond", "11", TRIED),
    (23, "bob", "take", "11"),
    (22, "bob", "correspond", "11", "Which tray does it name, 1 or 2? And is it the same with "
     "<b>landscape</b> pages?"),
    (21, "bob", "comment", "11", "Third time this quarter. See \\\\files\\contracts\\printers."),
    (20, "ann", "correspond", "11", "Tray 1, and yes.\nДля проверки: «Съешь же ещё этих булок».\n"
     "日本語のページも同じです。\n中文也一样。"),
    (19, "bob", "watch", "11", "cc", "cid"),
    (18, "bob", "link", "11", "DependsOn", "9"),
    (17, "bob", "link", "11", "RefersTo", "1"),
    (3, "lin", "create", "support", "New colleague on 1 December: desk, account, keys"),
    (2, "bob", "take", "12"),
]
# what each part relies on: the request with the conversation, one that nobody owns, the trick
TALK, FREE, TRICKY, LAST = 11, 8, 4, 12
LATE = {1, 2, 4}


def words_of(moment):
    """The office's commands, each as its minute, its caller and its words."""
    for hours, caller, *words in BEFORE:
        yield moment - 60 * hours, caller, words


def minute():
    return int(time.time()) // 60
