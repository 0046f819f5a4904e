<?php
// Says what PHP finds in scripts: whether it takes them, and their nowdoc blocks, heredocs and comments. The first column of each line of
// standard input is a script, with \n, \r, \t, \\ and \xHH in it, or with a folder as the program's word a file's path below it.
// A line is printed for each: that column, a tab, `takes` or `refuses`, and behind it `; nowdoc POSITION LABEL`, `; heredoc POSITION LABEL
// LINE` with the line of the closing label, `; remark POSITION BYTES`, in the order in which they end.

error_reporting(0);

function tokens(string $script): array
{
    try {
        return ['takes', token_get_all($script, TOKEN_PARSE)];
    } catch (Throwable) {
        return ['refuses', token_get_all($script)];
    }
}

// Lines end in LF, in a script without one in CR.
function line(string $script, int $position): int
{
    $break = str_contains($script, "\n") ? "\n" : "\r";
    return substr_count($script, $break, 0, $position) + 1;
}

function opening(string $text, int $at): array
{
    $start = strpos($text, '<<<');
    $label = trim(substr($text, $start + 3));
    return [$label[0] === "'" ? 'nowdoc' : 'heredoc', $at + $start, trim($label, "'\"")];
}

function parts(string $script): string
{
    [$said, $tokens] = tokens($script);
    [$at, $open] = [0, []];
    foreach ($tokens as $token) {
        [$kind, $text] = is_array($token) ? $token : [0, $token];
        if ($kind === T_START_HEREDOC) {
            $open[] = opening($text, $at);
        } elseif ($kind === T_END_HEREDOC) {
            [$what, $position, $label] = array_pop($open);
            $line = $what === 'heredoc' ? ' ' . line($script, $at + strlen($text)) : '';
            $said .= "; $what $position $label$line";
        } elseif ($kind === T_COMMENT || $kind === T_DOC_COMMENT) {
            $said .= "; remark $at " . strlen($text);
        }
        $at += strlen($text);
    }
    return $said;
}

while (($line = fgets(STDIN)) !== false) {
    $column = explode("\t", rtrim($line, "\n"))[0];
    $script = isset($argv[1]) ? file_get_contents("$argv[1]/$column") : stripcslashes($column);
    echo $column, "\t", parts($script), "\n";
}
