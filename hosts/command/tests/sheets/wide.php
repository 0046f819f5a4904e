<?php <<<'W'
0123456789abcdef
0123456789abcdefg
W;
