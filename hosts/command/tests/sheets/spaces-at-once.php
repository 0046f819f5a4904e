<?php
<<<'A'
		o
   o
		A;
