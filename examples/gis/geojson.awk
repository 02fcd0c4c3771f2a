# Makes GeoJSON of the hits that `extractd geocode` writes. Hits without a place are left out. Other lines are an error, with status 1.
BEGIN { FS = "\t" }
!/^[0-9]+\t[LR]\t(-\t-|-?[0-9]+\t-?[0-9]+)$/ { print "geojson.awk: line " NR " is no hit" > "/dev/stderr"; refused = 1; exit 1 }
$3 != "-" {
    place = sprintf("{\"type\":\"Point\",\"coordinates\":[%.6f,%.6f]}", $3 / 1e6, $4 / 1e6)
    text = text separator sprintf("\n{\"type\":\"Feature\",\"geometry\":%s,\"properties\":{\"tlid\":%s,\"side\":\"%s\"}}", place, $1, $2)
    separator = ","
}
END { if (!refused) print "{\"type\":\"FeatureCollection\",\"features\":[" text "\n]}" }
