-- What counts.py counts by itself: every transaction, every attachment, every ticket. The three
-- databases take it as it stands, and write words between tabs:
--   sqlite3 -readonly -tabs rt.db < counts.sql > counted
--   psql -X -At -F "$(printf '\t')" rt5 < counts.sql > counted
--   mysql --batch --quick --skip-column-names rt5 < counts.sql > counted
SELECT 'ticket', Tickets.id, COALESCE(Tickets.Type, 'ticket'),
    CASE WHEN Queues.id IS NULL THEN 'no queue' ELSE 'queue' END
    FROM Tickets LEFT JOIN Queues ON Queues.id = Tickets.Queue ORDER BY Tickets.id;
SELECT 'attachment', TransactionId, CASE WHEN COALESCE(Filename, '') = '' THEN 'unnamed' ELSE 'named' END,
    LOWER(COALESCE(ContentType, '')), COALESCE(ContentEncoding, ''),
    CASE WHEN COALESCE(LENGTH(Content), 0) = 0 THEN 'empty' ELSE 'full' END
    FROM Attachments ORDER BY TransactionId, id;
SELECT 'transaction', id, ObjectId, ObjectType, COALESCE(Type, ''), COALESCE(Field, '')
    FROM Transactions ORDER BY id;
