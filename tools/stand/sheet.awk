# Shows the stock sheet, behind report.awk: four numbers for each of 13 classes and 16 regions.
BEGIN {
    regions = 16
    columns = split("8 10 14 9", width, " ")
}

END {
    check("the sheet", columns * classes * regions)
    print "block region  in hand  in caches  with requests  in chain  blocks"
    for (class = 0; class < classes; class++)
        for (region = 0; region < regions; region++)
            line(sprintf("%5d %6d", size[class + 1], region), columns * (regions * class + region), columns)
    finish()
}
