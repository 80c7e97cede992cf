# The codes of the pool and the stand in words, for the files behind this one. Code 0 is not among them: what it means
# depends on the record.
BEGIN {
    meaning[1] = "control not 8,192 bytes"
    meaning[2] = "regions not 1 to 4"
    meaning[3] = "tasks not 1 to 8"
    meaning[4] = "not started"
    meaning[5] = "no such task"
    meaning[6] = "request in hand"
    meaning[7] = "no request in hand"
    meaning[8] = "size 0"
    meaning[9] = "size above 65,536"
    meaning[10] = "no block or strip there"
    meaning[11] = "not in a user's hands"
    meaning[12] = "no descriptor"
    meaning[13] = "no region"
    meaning[14] = "damaged memory"
    meaning[15] = "unknown kind or cut record"
    meaning[16] = "no strip"
    meaning[20] = "finished"
}

function meaning_of_code(code) {
    return code in meaning ? meaning[code] : "unknown code"
}
