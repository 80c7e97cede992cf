# Shows the form by holder, behind report.awk: eighteen numbers for each of 13 classes. No cache and no request has more
# than 513 blocks, so that three digits are enough for a task.
BEGIN {
    columns = split("8  4 3 3 3 3 3 3 3  5 3 3 3 3 3 3 3  10", width, " ")
}

END {
    check("the form by holder", columns * classes)
    print "                in caches, by task                with requests, by task"
    print "block  in hand    0   1   2   3   4   5   6   7     0   1   2   3   4   5   6   7  in chains  blocks"
    for (class = 0; class < classes; class++)
        line(sprintf("%5d", size[class + 1]), columns * class, columns)
    finish()
}
