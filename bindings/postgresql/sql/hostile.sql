-- What nobody should hand in: each is refused, and the same backend answers at the end.
\set SHOW_CONTEXT never
\set VERBOSITY terse
SELECT file, lines FROM master NATURAL JOIN notices WHERE name = 'morning' \gset
SELECT pg_backend_pid() AS before \gset

\echo null
SELECT scullpouch_load(NULL) IS NULL, scullpouch_load_refusal(NULL) IS NULL, scullpouch_due(NULL, :'lines', 'AXA', '2008-04-17') IS NULL,
       scullpouch_due(:'file', NULL, 'AXA', '2008-04-17') IS NULL, scullpouch_due(:'file', :'lines', NULL, '2008-04-17') IS NULL,
       scullpouch_due(:'file', :'lines', 'AXA', NULL) IS NULL, scullpouch_tick(:'file', :'lines', 'AXA', NULL) IS NULL,
       scullpouch_cash(:'file', :'lines', 'AXAF', NULL, 1, 1) IS NULL, scullpouch_last_trading_day(:'file', :'lines', 'AXA', NULL) IS NULL,
       scullpouch_question(NULL) IS NULL;
SELECT (SELECT count(*) FROM scullpouch_products(NULL)), (SELECT count(*) FROM scullpouch_listing(:'file', NULL, '2008-03-20')),
       (SELECT count(*) FROM scullpouch_delivery(:'file', NULL)), (SELECT count(*) FROM scullpouch_rejects(NULL, :'lines'));

\echo empty
SELECT scullpouch_load_refusal(''), scullpouch_listing_refusal('', '', '2008-03-20'), scullpouch_listing_refusal(:'file', '', '2008-03-20'),
       scullpouch_bad_notice(''), scullpouch_delivery_refusal(:'file', ''), scullpouch_due_refusal(:'file', '', 'AXA', '2008-03-20'),
       scullpouch_last_trading_day_refusal(:'file', :'lines', 'AXA', '');
SELECT scullpouch_products('');
SELECT scullpouch_delivery('', '');
SELECT scullpouch_delivery(:'file', '');

\echo long
SELECT scullpouch_bad_notice(E'O 2008-03-17\n' || repeat(E'#\n', 1000000)), scullpouch_delivery_refusal(:'file', repeat('#', 65537));
SELECT scullpouch_load_refusal(:'file'::bytea || decode(repeat('00', 65536), 'hex')), scullpouch_load_refusal(substr(:'file'::bytea, 1, 1023)),
       scullpouch_load_refusal(decode(repeat('00', 65536), 'hex')), scullpouch_load_refusal(decode(repeat('ff', 65537), 'hex'));

\echo dates
SELECT day, scullpouch_listing_refusal(:'file', 'AXA', day), scullpouch_due_refusal(:'file', :'lines', 'AXA', day)
  FROM unnest(ARRAY['-infinity', '4713-01-01 BC', '1999-12-31', '2000-01-01', '2007-12-31', '2008-01-01', '2013-12-31', '2014-01-01',
                    '2099-12-31', '2100-01-01', '2179-06-06', '2179-06-07', '2187-08-26', '2367-01-29', '5874897-12-31', 'infinity']::date[]) AS day;

\echo ids
SELECT n, scullpouch_listing_refusal(:'file', id, '2008-03-20'), scullpouch_tick_refusal(:'file', :'lines', id, 1)
  FROM unnest(ARRAY['AXA', 'AXA ', 'axa', ' AXA', 'AXA' || chr(10), 'ÄXA', 'é', '日', '日本', '😀', 'A😀', 'AXAFF', '%s%n', '    ', 'AXA' || chr(1)]) WITH ORDINALITY AS u (id, n);

\echo numbers
SELECT n, scullpouch_tick_refusal(:'file', :'lines', 'AXAF', price), scullpouch_cash_refusal(:'file', :'lines', 'AXAF', 1, price, 1),
       scullpouch_cash_refusal(:'file', :'lines', 'AXAF', 1, 1, price)
  FROM unnest(ARRAY['NaN', '-1', '-0.0001', '-0.00001', '0', '0.00001', '0.0001', '0.01', '0.010000000', '0.0100000001', '99999.99', '99999.9999',
                    '99999.99999', '100000', '429496.7295', '429496.7296', '429497.7296', '1e20', '-1e20', '1e-1000']::numeric[])
       WITH ORDINALITY AS u (price, n);
SELECT scullpouch_tick_refusal(:'file', :'lines', 'AXAF', ('1e' || 100000)::numeric), scullpouch_cash_refusal(:'file', :'lines', 'AXAF', 1, 1, ('-1e' || 100000)::numeric);
SELECT contracts, scullpouch_cash_refusal(:'file', :'lines', 'AXAF', contracts, 1, 1)
  FROM unnest('{-9223372036854775808, -4294967295, -1, 0, 1, 100000, 100001, 4294967295, 4294967296, 4294967297, 9223372036854775807}'::bigint[])
       AS contracts;
SELECT scullpouch_cash(:'file', :'lines', 'ALVF', 100000, 0.01, 99999.9999), scullpouch_cash(:'file', :'lines', 'ENTF', 100000, 99999.9995, 0);
SELECT n, scullpouch_question(n), scullpouch_hint(n) FROM unnest(ARRAY[-2147483648, -1, 0, 25, 32, 256, 2147483647]) AS n;

\echo maturities
SELECT n, scullpouch_last_trading_day_refusal(:'file', :'lines', 'AXA', maturity), scullpouch_last_trading_day_refusal(:'file', :'lines', 'AXAW', maturity)
  FROM unnest(ARRAY['2008-04', '2008-04-25', '2008-4', '2008-04 ', '2008-04-18', '2008-13', '99999999-99', '-1', '%s', '2008-0😀'])
       WITH ORDINALITY AS u (maturity, n);

\echo notices
SELECT scullpouch_bad_notice(lines) FROM unnest(ARRAY[E'O 2008-03-17', E'O 2008-03-17\r\n', E'\uFEFFO 2008-03-17', E'O 2008-03-17\nÄ', E'O 2008-03-17\n\nM ÄXA 3 2 1',
    E'O 1999-12-31', E'O 2008-03-17\nM AXAF 99999999999999999999999 1 1.0000', E'O 2008-03-17\nM AXAF -1 1 1.0000', E'o 2008-03-17', E'O 2008-03-17\nO 2008-03-18']) AS lines;
SELECT line, refusal, product FROM scullpouch_rejects(:'file', E'O 2008-03-17\nM AXAF 99999999999999999999999 1 1.0000\nM AXAF 1 1 99999999999999999999999.0000\nM ZZZZ 0 0 0\n');

\echo the same backend
SELECT pg_backend_pid() = :before, count(*) FROM scullpouch_delivery(:'file', :'lines');
