<?php
f(); /*/ it's
<<<'A'
o
A;
