<?php
	"kerb \u{}";
