-- The morning of examples/morning. The tables master and notices hold its two files.
\set ON_ERROR_STOP 1
\echo load
SELECT l.* FROM master, scullpouch_load(file) l WHERE name = 'morning';
\echo products
SELECT p.* FROM master, scullpouch_products(file) p WHERE name = 'morning';
\echo delivery
SELECT d.* FROM master NATURAL JOIN notices, scullpouch_delivery(file, lines) d WHERE name = 'morning';
\echo rejects
SELECT r.*, scullpouch_question(refusal) FROM master NATURAL JOIN notices, scullpouch_rejects(file, lines) r WHERE name = 'morning';
\echo listing
SELECT l.* FROM master, scullpouch_listing(file, 'AXAW', '2008-03-17') l WHERE name = 'morning';
SELECT scullpouch_listing_refusal(file, 'AXA', '2008-03-17'), scullpouch_listing_refusal(file, 'XXXX', '2008-03-17')
  FROM master WHERE name = 'morning';
\echo questions
SELECT scullpouch_last_trading_day(file, lines, 'AXA', '2008-04'),
       scullpouch_last_trading_day(file, lines, 'ENL5', '2008-04'),
       scullpouch_last_trading_day_refusal(file, lines, 'AXA', '2008-03'),
       scullpouch_last_trading_day(file, lines, 'AXAW', '2008-04-25'),
       scullpouch_last_trading_day_refusal(file, lines, 'AXAW', '2008-04')
  FROM master NATURAL JOIN notices WHERE name = 'morning';
SELECT scullpouch_due(file, lines, 'AXA', '2008-03-20'), scullpouch_due(file, lines, 'AXA', '2008-04-19'),
       scullpouch_due(file, lines, 'AXAF', '2008-04-19')
  FROM master NATURAL JOIN notices WHERE name = 'morning';
SELECT scullpouch_cash(file, lines, 'AXAF', 3, 12.34, 12.5), scullpouch_cash(file, lines, 'AXAF', 3, 12.5, 12.34),
       scullpouch_cash(file, lines, 'TOT5', 1, 52.1, 52.11), scullpouch_cash(file, lines, 'AXAF', 3, 12.5, 12.5),
       scullpouch_cash_refusal(file, lines, 'BMW', 3, 35, 36), scullpouch_cash_refusal(file, lines, 'AXAF', 3, 12.34, 12.5)
  FROM master NATURAL JOIN notices WHERE name = 'morning';
SELECT scullpouch_tick(file, lines, 'BMW', 35.01), scullpouch_tick_refusal(file, lines, 'BMW', 35.0100000),
       scullpouch_tick_refusal(file, lines, 'BMW', 35.005), scullpouch_tick_refusal(file, lines, 'XXXX', 35.01)
  FROM master NATURAL JOIN notices WHERE name = 'morning';
