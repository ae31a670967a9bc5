-- The functions of the extension. What each answers comes from a proved call; the module between the two is not proved.
-- A cost of 1 stands for some 10 to 20 ns; the costs were measured with a file of 788 products.
\echo Use "CREATE EXTENSION scullpouch" to load this file. \quit

-- ---- The file ----

CREATE FUNCTION scullpouch_interface() RETURNS integer
  AS 'MODULE_PATHNAME', 'scullpouch_pg_interface' LANGUAGE C STRICT IMMUTABLE PARALLEL SAFE;

CREATE FUNCTION scullpouch_load(master bytea, OUT years integer, OUT records integer)
  AS 'MODULE_PATHNAME', 'scullpouch_pg_load' LANGUAGE C STRICT IMMUTABLE PARALLEL SAFE COST 3000;

CREATE FUNCTION scullpouch_load_refusal(master bytea) RETURNS integer
  AS 'MODULE_PATHNAME', 'scullpouch_pg_load_refusal' LANGUAGE C STRICT IMMUTABLE PARALLEL SAFE COST 3000;

CREATE FUNCTION scullpouch_products(master bytea)
  RETURNS TABLE (product text, product_group text, market text, kind integer, size numeric, tick numeric, currency text)
  AS 'MODULE_PATHNAME', 'scullpouch_pg_products' LANGUAGE C STRICT IMMUTABLE PARALLEL SAFE COST 2000000 ROWS 800;

-- ---- A listing made afresh ----

CREATE FUNCTION scullpouch_listing(master bytea, id text, on_date date)
  RETURNS TABLE (product text, number integer, maturity text, last_trading_day date, days_back integer)
  AS 'MODULE_PATHNAME', 'scullpouch_pg_listing' LANGUAGE C STRICT IMMUTABLE PARALLEL SAFE COST 4000 ROWS 13;

CREATE FUNCTION scullpouch_listing_refusal(master bytea, id text, on_date date) RETURNS integer
  AS 'MODULE_PATHNAME', 'scullpouch_pg_listing_refusal' LANGUAGE C STRICT IMMUTABLE PARALLEL SAFE COST 4000;

-- ---- A delivery: all products after the notices ----

CREATE FUNCTION scullpouch_delivery(master bytea, notices text)
  RETURNS TABLE (product text, number integer, maturity text, last_trading_day date, days_back integer)
  AS 'MODULE_PATHNAME', 'scullpouch_pg_delivery' LANGUAGE C STRICT IMMUTABLE PARALLEL SAFE COST 400000 ROWS 10000;

CREATE FUNCTION scullpouch_delivery_refusal(master bytea, notices text) RETURNS integer
  AS 'MODULE_PATHNAME', 'scullpouch_pg_delivery_refusal' LANGUAGE C STRICT IMMUTABLE PARALLEL SAFE COST 4000;

CREATE FUNCTION scullpouch_rejects(master bytea, notices text)
  RETURNS TABLE (line integer, refusal integer, product text)
  AS 'MODULE_PATHNAME', 'scullpouch_pg_rejects' LANGUAGE C STRICT IMMUTABLE PARALLEL SAFE COST 80000 ROWS 10;

CREATE FUNCTION scullpouch_bad_notice(notices text) RETURNS integer
  AS 'MODULE_PATHNAME', 'scullpouch_pg_bad_notice' LANGUAGE C STRICT IMMUTABLE PARALLEL SAFE COST 1000;

-- ---- Questions to the table of one product after the notices ----

CREATE FUNCTION scullpouch_due(master bytea, notices text, id text, on_date date) RETURNS date
  AS 'MODULE_PATHNAME', 'scullpouch_pg_due' LANGUAGE C STRICT IMMUTABLE PARALLEL SAFE COST 6000;

CREATE FUNCTION scullpouch_due_refusal(master bytea, notices text, id text, on_date date) RETURNS integer
  AS 'MODULE_PATHNAME', 'scullpouch_pg_due_refusal' LANGUAGE C STRICT IMMUTABLE PARALLEL SAFE COST 6000;

CREATE FUNCTION scullpouch_tick(master bytea, notices text, id text, price numeric) RETURNS boolean
  AS 'MODULE_PATHNAME', 'scullpouch_pg_tick' LANGUAGE C STRICT IMMUTABLE PARALLEL SAFE COST 6000;

CREATE FUNCTION scullpouch_tick_refusal(master bytea, notices text, id text, price numeric) RETURNS integer
  AS 'MODULE_PATHNAME', 'scullpouch_pg_tick_refusal' LANGUAGE C STRICT IMMUTABLE PARALLEL SAFE COST 6000;

CREATE FUNCTION scullpouch_cash(master bytea, notices text, id text, contracts bigint, agreed numeric, final numeric)
  RETURNS numeric
  AS 'MODULE_PATHNAME', 'scullpouch_pg_cash' LANGUAGE C STRICT IMMUTABLE PARALLEL SAFE COST 6000;

CREATE FUNCTION scullpouch_cash_refusal(master bytea, notices text, id text, contracts bigint, agreed numeric, final numeric)
  RETURNS integer
  AS 'MODULE_PATHNAME', 'scullpouch_pg_cash_refusal' LANGUAGE C STRICT IMMUTABLE PARALLEL SAFE COST 6000;

CREATE FUNCTION scullpouch_last_trading_day(master bytea, notices text, id text, maturity text) RETURNS date
  AS 'MODULE_PATHNAME', 'scullpouch_pg_last_trading_day' LANGUAGE C STRICT IMMUTABLE PARALLEL SAFE COST 6000;

CREATE FUNCTION scullpouch_last_trading_day_refusal(master bytea, notices text, id text, maturity text) RETURNS integer
  AS 'MODULE_PATHNAME', 'scullpouch_pg_last_trading_day_refusal' LANGUAGE C STRICT IMMUTABLE PARALLEL SAFE COST 6000;

-- ---- Refusals in words: NULL for a number that is none ----

CREATE FUNCTION scullpouch_question(refusal integer) RETURNS text
  AS 'MODULE_PATHNAME', 'scullpouch_pg_question' LANGUAGE C STRICT IMMUTABLE PARALLEL SAFE COST 10;

CREATE FUNCTION scullpouch_hint(refusal integer) RETURNS text
  AS 'MODULE_PATHNAME', 'scullpouch_pg_hint' LANGUAGE C STRICT IMMUTABLE PARALLEL SAFE COST 10;
