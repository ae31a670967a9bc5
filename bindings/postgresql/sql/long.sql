-- Values of a gigabyte. The number comes from a function, so that each is made when the query runs.
SELECT file, lines FROM master NATURAL JOIN notices WHERE name = 'morning' \gset
SELECT pg_backend_pid() AS before \gset
SELECT scullpouch_load_refusal(convert_to(repeat(repeat('x', 1000), n), 'SQL_ASCII')) FROM generate_series(1073741, 1073741) AS n;
SELECT scullpouch_bad_notice(repeat(repeat('#', 1000), n)) FROM generate_series(1073741, 1073741) AS n;
SELECT scullpouch_listing_refusal(:'file', repeat(repeat('A', 1000), n), '2008-03-20') FROM generate_series(1073741, 1073741) AS n;
SELECT scullpouch_last_trading_day_refusal(:'file', :'lines', 'AXA', repeat(repeat('2', 1000), n)) FROM generate_series(1073741, 1073741) AS n;
SELECT pg_backend_pid() = :before;
