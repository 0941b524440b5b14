#!/usr/bin/env perl
# Times Marpa::R2 on the cases in a folder: for each message the nanoseconds of recognizing it and of its first tree.
# Writes a line for each: the case, the words, the nanoseconds, the tree's price; or the case, 0, 0 and why not.
use strict;
use warnings;
use Time::HiRes qw(clock_gettime CLOCK_PROCESS_CPUTIME_ID);
use Marpa::R2;

my $limit = 3;     # seconds for a message
my $enough = 0.06; # seconds of processor time after which a message is not tried again

sub lines_of {
    my ($file) = @_;
    open my $in, '<', $file or die "$file: $!\n";
    chomp(my @lines = <$in>);
    return @lines;
}

# The grammar of a sheet by libmarpa's own calls. A rule's rank is its weight below zero: Marpa ranks the choices at each
# name, not whole trees. With a cycle it complains, and goes on.
sub grammar_of {
    my (@lines) = @_;
    my $grammar = Marpa::R2::Thin::G->new({ if => 1 });
    $grammar->force_valued;
    my (%symbols, @weights);
    for my $line (grep { /^rule\t/ } @lines) {
        my (undef, $weight, @fields) = split /\t/, $line;
        my ($left, @right) = map { $symbols{$_} //= $grammar->symbol_new } @fields;
        $grammar->start_symbol_set($left) if !@weights;
        my $rule = $grammar->rule_new($left, \@right);
        $grammar->rule_rank_set($rule, -$weight) if @right;
        $weights[$rule] = $weight;
    }
    $grammar->throw_set(0);
    $grammar->precompute;
    $grammar->throw_set(1);
    return { grammar => $grammar, symbols => \%symbols, weights => \@weights };
}

# The price of the first tree, without what stands for nothing in it.
sub parse {
    my ($sheet, @words) = @_;
    my $recognizer = Marpa::R2::Thin::R->new($sheet->{grammar});
    $recognizer->start_input;
    for my $word (@words) {
        $recognizer->alternative($sheet->{symbols}{$word}, 1, 1);
        $recognizer->earleme_complete;
    }
    my $order = Marpa::R2::Thin::O->new(Marpa::R2::Thin::B->new($recognizer, $recognizer->latest_earley_set));
    $order->rank;
    my $tree = Marpa::R2::Thin::T->new($order);
    defined $tree->next or die "no tree\n";
    my $steps = Marpa::R2::Thin::V->new($tree);
    my $price = 0;
    while (my ($type, @step) = $steps->step) {
        $price += $sheet->{weights}[$step[0]] if $type eq 'MARPA_STEP_RULE';
    }
    return $price;
}

# The least seconds of a parse.
sub least {
    my ($grammar, $message) = @_;
    my ($best, $spent, $price) = (9e9, 0);
    for (my $k = 0; $spent < $enough && $k < 500; $k++) {
        my $from = clock_gettime(CLOCK_PROCESS_CPUTIME_ID);
        $price = parse($grammar, split / /, $message);
        my $taken = clock_gettime(CLOCK_PROCESS_CPUTIME_ID) - $from;
        $best = $taken if $taken < $best;
        $spent += $taken;
    }
    return ($best, $price);
}

sub measure {
    my ($case, $file) = @_;
    my $grammar = grammar_of(lines_of("$file.sheet"));
    for my $message (lines_of("$file.messages")) {
        alarm $limit;
        my ($seconds, $price) = least($grammar, $message);
        printf "%s\t%d\t%.0f\t%s\n", $case, scalar(split / /, $message), $seconds * 1e9, $price;
    }
}

# Each case in a process of its own, which the alarm ends where a message takes too long.
$| = 1;
my $folder = shift or die "usage: marpa.pl FOLDER\n";
for my $file (map { s/\.sheet$//r } sort glob "$folder/*.sheet") {
    my $case = $file =~ s{.*/}{}r;
    my $child = fork // die "fork: $!\n";
    if ($child == 0) {
        eval { measure($case, $file); 1 } or print "$case\t0\t0\t", (split /\n/, $@)[0], "\n";
        exit;
    }
    waitpid $child, 0;
    print "$case\t0\t0\tnot within $limit seconds\n" if $?;
}
