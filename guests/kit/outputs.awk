# Of a machine's text, a line for each output: its hart, its number from 0, and its word.
$1 == "hart" { hart = $2 }
$1 == "out" { print "hart", hart, "out", $2, "word", $6 }
