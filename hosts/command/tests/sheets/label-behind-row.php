<?php
f(<<<'ROAD'
oo
oo ROAD);
