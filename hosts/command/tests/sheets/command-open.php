<?php `ls $x
