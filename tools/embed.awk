# Writes files as C: FILE.css becomes the array FILE_css of its lines, which ends with NULL.
#     awk -f embed.awk page.css page.js >page_parts.h
FNR == 1 {
    if (NR > 1) print "    NULL};"
    name = FILENAME
    sub(/.*\//, "", name)
    gsub(/\./, "_", name)
    print "static const char *const " name "[] = {"
}
{
    gsub(/\\/, "\\\\")
    gsub(/"/, "\\\"")
    gsub(/\?/, "\\?")
    print "    \"" $0 "\\n\","
}
END { print "    NULL};" }
