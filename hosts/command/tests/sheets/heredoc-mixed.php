<?php
<<<A
$x
 	  A;
