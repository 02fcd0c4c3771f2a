-- Loads the county that postgis.py has written into the current folder into the tables of PostGIS's TIGER geocoder.
-- The variables `code` and `county` are the county's code and name. All counties are in Alabama.

\set ON_ERROR_STOP on
SET search_path = tiger, public;
SET client_min_messages = warning;
SELECT left(:'code', 2) AS state, right(:'code', 3) AS part \gset

CREATE SCHEMA raw;
CREATE TABLE raw.segments (tlid bigint, mtfcc text, fullname text, from_node int, to_node int, line geometry);
CREATE TABLE raw.sides (tlid bigint, side text, zip text, point geometry, cousub text, place text, tract text, block text);
CREATE TABLE raw.cities (code text, kind text, name text);
\copy raw.segments FROM 'segments.csv' CSV
\copy raw.sides FROM 'sides.csv' CSV
\copy raw.cities FROM 'cities.csv' CSV
\copy addr (tlid, side, fromhn, tohn, zip) FROM 'ranges.csv' CSV
\copy featnames (tlid, paflag, fullname, predirabrv, pretypabrv, name, suftypabrv, sufdirabrv) FROM 'names.csv' CSV
UPDATE addr SET statefp = :'state';
UPDATE featnames AS name SET statefp = :'state', mtfcc = segments.mtfcc FROM raw.segments WHERE segments.tlid = name.tlid;

-- All lines end where they cross, so they enclose the faces. A face has the areas of most of the sides around it.
CREATE TABLE raw.faces AS
    SELECT row_number() OVER () AS tfid, geom FROM (SELECT (ST_Dump(ST_Polygonize(line))).geom FROM raw.segments) AS dumped;
CREATE INDEX ON raw.faces USING gist (geom);
CREATE TABLE raw.located AS
    SELECT sides.*, tfid FROM raw.sides LEFT JOIN raw.faces ON ST_Contains(geom, point);
INSERT INTO faces (tfid, statefp, countyfp, cousubfp, placefp, tractce, blockce, the_geom)
    SELECT tfid, :'state', :'part', areas[1], coalesce(areas[2], '99999'), areas[3], areas[4], ST_Multi(geom)
    FROM raw.faces LEFT JOIN (
        SELECT tfid, mode() WITHIN GROUP (ORDER BY ARRAY[cousub, place, tract, block]) AS areas
        FROM raw.located WHERE cousub IS NOT NULL GROUP BY tfid
    ) AS most USING (tfid);

INSERT INTO edges (statefp, countyfp, tlid, tfidl, tfidr, mtfcc, fullname, zipl, zipr, roadflg, railflg, hydroflg,
                   tnidf, tnidt, the_geom)
    SELECT :'state', :'part', tlid, l.tfid, r.tfid, mtfcc, fullname, l.zip, r.zip,
           CASE WHEN mtfcc LIKE 'S%' THEN 'Y' ELSE 'N' END, CASE WHEN mtfcc LIKE 'R%' THEN 'Y' ELSE 'N' END,
           CASE WHEN mtfcc LIKE 'H%' THEN 'Y' ELSE 'N' END, from_node, to_node, ST_Multi(line)
    FROM raw.segments
    JOIN raw.located AS l USING (tlid)
    JOIN raw.located AS r USING (tlid)
    WHERE l.side = 'L' AND r.side = 'R';

INSERT INTO state (statefp, stusps, name, the_geom)
    SELECT :'state', 'AL', 'Alabama', ST_Multi(ST_Union(the_geom)) FROM faces;
INSERT INTO county (statefp, countyfp, cntyidfp, name, namelsad, the_geom)
    SELECT :'state', :'part', :'code', :'county', :'county' || ' County', the_geom FROM state;
INSERT INTO place (statefp, placefp, plcidfp, name, namelsad, the_geom)
    SELECT :'state', code, :'state' || code, name, name || ' town', ST_Multi(ST_Union(the_geom))
    FROM raw.cities JOIN faces ON placefp = code WHERE kind = 'P' GROUP BY code, name;
INSERT INTO cousub (statefp, countyfp, cousubfp, cosbidfp, name, namelsad, the_geom)
    SELECT :'state', :'part', code, :'code' || code, name, name || ' division', ST_Multi(ST_Union(the_geom))
    FROM raw.cities JOIN faces ON cousubfp = code WHERE kind = 'M' GROUP BY code, name;

INSERT INTO county_lookup VALUES (:'state'::int, 'AL', :'part'::int, :'county');
INSERT INTO place_lookup SELECT statefp::int, 'AL', placefp::int, name FROM place;
INSERT INTO countysub_lookup
    SELECT statefp::int, 'AL', countyfp::int, :'county', cousubfp::int, name FROM cousub;
CREATE TABLE raw.zips AS
    SELECT addr.zip, name AS city, count(*) AS sides
    FROM addr JOIN raw.sides USING (tlid, side) JOIN raw.cities ON code = coalesce(place, cousub)
    WHERE addr.zip IS NOT NULL GROUP BY addr.zip, name;
INSERT INTO zip_lookup_base (zip, state, county, city, statefp)
    SELECT DISTINCT ON (zip) zip, 'Alabama', :'county', city, :'state' FROM raw.zips ORDER BY zip, sides DESC;
INSERT INTO zip_state (zip, stusps, statefp) SELECT DISTINCT zip, 'AL', :'state' FROM raw.zips;
INSERT INTO zip_state_loc (zip, stusps, statefp, place) SELECT zip, 'AL', :'state', city FROM raw.zips;

DROP SCHEMA raw CASCADE;
SELECT install_missing_indexes() \gset
VACUUM ANALYZE;
