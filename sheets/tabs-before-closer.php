<?php

$title = 'Quay Steps, from the tram stop to the ferry';

function quay_steps(): string
{
	return <<<'RELIEF'
		tram stop
		oooooooooooooooooooooooooo
		      ..........
		      ..........
		   H  --------------  H
		   H  --------------  H
		   H  --------------  H

		      ..........
		   H  --------------  H
		   H  --------------  H
		   H  --------------  H
		      ..........
		~~~~~~~~|		|~~~~~~~~
		~~~~~~~~|		|~~~~~~~~
		ferry
		RELIEF;
}

$legend = <<<'RELIEF'
	H   handrail
	--  step, its edge raised
	~   water
	RELIEF;

return ['title' => $title, 'relief' => [quay_steps(), $legend]];
