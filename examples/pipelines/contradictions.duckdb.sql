-- Not run: DuckDB was not available for the tests. It should do the same as contradictions.sql.
CREATE VIEW contradictions AS
    SELECT file AS provider, "row", concept, entity, period, dimensions, value, nil, decimals
    FROM read_csv('verdicts.csv', header = true, all_varchar = true)
    JOIN read_csv('sources.csv', header = true, all_varchar = true) USING (fact) WHERE verdict = 'inconsistent';
SELECT provider, count(DISTINCT "row") FROM contradictions GROUP BY provider;
