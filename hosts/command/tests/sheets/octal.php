<?php
echo "a", "kerb \400";
