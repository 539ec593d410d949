# Reads one question a line: flags, the character set's modifier (`a`, or nothing for `/d`), rule and subject in hex, the number of groups, and 1 for
# all matches by `/g` or 0 for the first one, with tabs between them.
# Answers on one line each: `failed` for a rule refused or a panic, `slow` for a match that takes more than ten seconds, and then nothing more, `none`, or
# start, end and the span of each group that is set. Behind the first match stands each name that `%-` has, with what `%+` has of it in hex, or `-` for nothing;
# between all matches stand bars.
# The rule stands in a variable, so that nothing in it is interpolated.
use strict;
no warnings;
use POSIX ();
$| = 0;
# Taken at once, and not between two of Perl's own steps: a match is one of these. Nothing can be done after one that was broken off: Perl may crash.
POSIX::sigaction(POSIX::SIGALRM(), POSIX::SigAction->new(sub {
    print "slow\n";
    $| = 1;
    POSIX::_exit(0);
}));

# The match that was just made.
sub row {
    my $groups = shift;
    return join " ", "$-[0]-$+[0]", map { defined $-[$_] ? "$_:$-[$_]-$+[$_]" : () } 1 .. $groups;
}

sub first_match {
    my ($compiled, $subject, $groups) = @_;
    return "none" if $subject !~ $compiled;
    return join " ", row($groups), map { "$_=" . (exists $+{$_} ? unpack("H*", $+{$_}) : "-") } sort keys %-;
}

sub all_matches {
    my ($compiled, $subject, $groups) = @_;
    my @rows;
    while ($subject =~ /$compiled/g) {
        push @rows, row($groups);
    }
    return @rows ? join "|", @rows : "none";
}

while (my $line = <STDIN>) {
    chomp $line;
    my ($flags, $charset, $rule, $subject, $groups, $all) = split /\t/, $line, -1;
    ($rule, $subject) = (pack("H*", $rule), pack("H*", $subject));
    my $modifiers = join "", $charset, map { $flags & 1 << $_ ? qw(s m i x)[$_] : () } 0 .. 3;
    # Under `x` the rule may end in a comment.
    my $text = "(?^$modifiers:$rule" . ($modifiers =~ /x/ ? "\n" : "") . ")";
    my $compiled = eval { qr/$text/ };
    if (!defined $compiled) {
        print "failed\n";
        next;
    }
    my $answer = eval {
        alarm 10;
        $all ? all_matches($compiled, $subject, $groups) : first_match($compiled, $subject, $groups);
    };
    alarm 0;
    print defined $answer ? $answer : "failed", "\n";
}
