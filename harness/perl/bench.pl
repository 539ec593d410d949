# Reads one case a line: flags, and rule and subject in hex, with tabs between them. Prints Perl's version, and then for each case the seconds that a
# match takes by the processor's time: a turn is a loop of a fixed count, the shortest of many turns counts. The rule is compiled before.
use strict;
use warnings;
use Time::HiRes qw(clock_gettime CLOCK_PROCESS_CPUTIME_ID);

my ($turn, $turns) = (0.001, 25);

sub seconds {
    my ($compiled, $subject, $count) = @_;
    my $found = 0;
    my $begun = clock_gettime(CLOCK_PROCESS_CPUTIME_ID);
    for (1 .. $count) {
        $found++ if $subject =~ $compiled;
    }
    return clock_gettime(CLOCK_PROCESS_CPUTIME_ID) - $begun;
}

print "$^V\n";
while (my $line = <STDIN>) {
    chomp $line;
    my ($flags, @texts) = split /\t/, $line, -1;
    my ($rule, $subject) = map { pack("H*", $_) } @texts;
    my $modifiers = join "", "a", map { $flags & 1 << $_ ? qw(s m i x)[$_] : () } 0 .. 3;
    # Under `x` the rule may end in a comment.
    my $text = "(?^$modifiers:$rule" . ($modifiers =~ /x/ ? "\n" : "") . ")";
    my $compiled = qr/$text/;
    my $count = 1;
    $count *= 2 while seconds($compiled, $subject, $count) < $turn;
    my $best;
    for (1 .. $turns) {
        my $took = seconds($compiled, $subject, $count);
        $best = $took if !defined $best || $took < $best;
    }
    printf "%.12f\n", $best / $count;
}
