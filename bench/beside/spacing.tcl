# Magic's part: reads block.gds and writes a line for each part of an area in error to found.txt: the rule, which is the layer's
# name, and its left, lower, right and upper side. The list is asked for only where there are errors, since it checks all again.
drc off
drc euclidean on
gds read block.gds
load block
select top cell
drc check
drc catchup
set out [open found.txt w]
if {[drc list count total] > 0} {
    foreach {why areas} [drc listall why] {
        foreach area $areas { puts $out "$why $area" }
    }
}
close $out
quit -noprompt
