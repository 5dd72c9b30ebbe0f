-- Loads verdicts.csv and sources.csv of the current folder, and counts the contradictions of each provider, for sqlite3.
-- Values are texts: as a REAL, a number would keep about 15 digits. A nil value is empty, and `nil` is then `true`.
CREATE TABLE verdicts ("row" INTEGER, verdict TEXT, fact TEXT, concept TEXT, entity TEXT, period TEXT, unit TEXT, language TEXT,
    dimensions TEXT, value TEXT, nil TEXT, decimals TEXT, common_low TEXT, common_high TEXT, apart_first TEXT, apart_second TEXT);
CREATE TABLE sources (report INTEGER, file TEXT, identifier TEXT, fact TEXT);
.import --csv --skip 1 verdicts.csv verdicts
.import --csv --skip 1 sources.csv sources
CREATE VIEW contradictions AS
    SELECT file AS provider, "row", concept, entity, period, dimensions, value, nil, decimals
    FROM verdicts JOIN sources USING (fact) WHERE verdict = 'inconsistent';
SELECT provider, count(DISTINCT "row") FROM contradictions GROUP BY provider;
