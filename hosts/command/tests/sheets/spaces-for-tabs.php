<?php
<<<'A'
		oo
	  oo
		A;
