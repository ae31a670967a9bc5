-- Every refusal that a function can raise: the message, the question, what to do, and the SQLSTATE.
\set SHOW_CONTEXT never
SELECT file, lines FROM master NATURAL JOIN notices WHERE name = 'morning' \gset
SELECT scullpouch_load('');
\echo :LAST_ERROR_SQLSTATE
SELECT scullpouch_load(set_byte(:'file', 600, 255));
\echo :LAST_ERROR_SQLSTATE
SELECT scullpouch_listing(:'file', 'XXXX', '2008-03-20');
\echo :LAST_ERROR_SQLSTATE
SELECT scullpouch_listing(:'file', 'AXA', '2014-01-01');
\echo :LAST_ERROR_SQLSTATE
SELECT scullpouch_listing(:'file', 'AXA', '2013-06-03');
\echo :LAST_ERROR_SQLSTATE
SELECT scullpouch_listing(:'file', 'AXAW', '2008-01-07');
\echo :LAST_ERROR_SQLSTATE
SELECT scullpouch_due(:'file', :'lines', 'AXA', '2013-12-31');
\echo :LAST_ERROR_SQLSTATE
SELECT scullpouch_last_trading_day(:'file', :'lines', 'AXA', '2008-03');
\echo :LAST_ERROR_SQLSTATE
SELECT scullpouch_tick(:'file', :'lines', 'BMW', 0);
\echo :LAST_ERROR_SQLSTATE
SELECT scullpouch_tick(:'file', :'lines', 'BMW', 35.005);
\echo :LAST_ERROR_SQLSTATE
SELECT scullpouch_cash(:'file', :'lines', 'BMW', 3, 35, 36);
\echo :LAST_ERROR_SQLSTATE
SELECT scullpouch_cash(:'file', :'lines', 'AXAF', 0, 12.34, 12.5);
\echo :LAST_ERROR_SQLSTATE
SELECT scullpouch_delivery(:'file', E'O 2008-03-17\nR 2008-03-32\n');
\echo :LAST_ERROR_SQLSTATE
SELECT scullpouch_rejects(:'file', E'R 2008-03-18\n');
\echo :LAST_ERROR_SQLSTATE
SELECT scullpouch_delivery_refusal(:'file', E'R 2008-03-18\n'), scullpouch_bad_notice(E'# nothing\nR 2008-03-18\n'),
       scullpouch_bad_notice(:'lines'), scullpouch_delivery_refusal('', ''), scullpouch_delivery_refusal(:'file', :'lines');
SELECT line, refusal, product FROM scullpouch_rejects(:'file', E'O 2008-01-07\nM NONE 2 1 10.0000\nC 2008-01-12\n')
  WHERE product IN ('AXA', 'AXAW', 'NONE');
-- all refusals at once, by the class
DO $$
BEGIN
  PERFORM scullpouch_load('');
EXCEPTION WHEN SQLSTATE 'SP000' THEN
  RAISE NOTICE 'refused: %', SQLSTATE;
END
$$;
