-- What each case begins with, over the tables of an RT that has nobody yet: ann, bob and cid, and
-- ticket 1, which ann filed in the queue General.
INSERT INTO Principals (id, PrincipalType, Disabled) VALUES (1001, 'User', 0), (1002, 'User', 0), (1003, 'User', 0);
INSERT INTO Users (id, Name, EmailAddress) VALUES (1001, 'ann', 'ann@example.org'),
    (1002, 'bob', 'bob@example.org'), (1003, 'cid', 'cid@example.org');
INSERT INTO Principals (id, PrincipalType, Disabled) VALUES (1011, 'Group', 0), (1012, 'Group', 0), (1021, 'Group', 0);
INSERT INTO Groups (id, Name, Domain, Instance) VALUES (1011, 'UserEquiv', 'ACLEquivalence', 1001),
    (1012, 'UserEquiv', 'ACLEquivalence', 1002), (1021, 'Requestor', 'RT::Ticket-Role', 1);
INSERT INTO GroupMembers (id, GroupId, MemberId) VALUES (1001, 1021, 1001);
INSERT INTO Tickets (id, EffectiveId, Queue, Type, Owner, Subject, Status, Creator, Created)
    VALUES (1, 1, 1, 'ticket', 6, 'printer', 'open', 1001, '2026-03-02 09:00:00');
INSERT INTO Transactions (id, ObjectType, ObjectId, Type, Creator, Created) VALUES
    (1001, 'RT::Ticket', 1, 'Create', 1001, '2026-03-02 09:00:00');
