<?php /*	a
 [1mb
*/ f("{$c /* in */} # no", <<<'A'
# row
A); // end
#