<?php
$a = <<<'ROAD'
	ab	c
	  d

	ROAD;
f(<<<'EMPTY'
EMPTY, <<<'ONE'

ONE);
