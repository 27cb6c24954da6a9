#!/usr/bin/perl
# Prints what RT itself says of tickets, by its own API, in the form of moving/thirty.py: who looks at
# thirty tickets has both beside each other. RT is reached as for moving/config.pl.
#   perl shown.pl NUMBER ..
use strict;
use warnings;
use RT -init;

binmode STDOUT, ':encoding(UTF-8)';
my %TEXTS = map { ($_ => 1) } qw(Create Correspond Comment);

sub minute { my ($date) = @_; return $date->IsSet ? substr($date->ISO, 0, 16) : '-' }

sub names {
    my ($group) = @_;
    return sort map { $_->MemberObj->Object->Name } @{ $group->MembersObj->ItemsArrayRef };
}

# The texts of a ticket: when, who, what, and the names of its files.
sub texts {
    my ($ticket) = @_;
    my $all = RT::Transactions->new(RT->SystemUser);
    $all->Limit(FIELD => 'ObjectType', VALUE => 'RT::Ticket');
    $all->Limit(FIELD => 'ObjectId', VALUE => $ticket->id);
    $all->OrderByCols({ FIELD => 'id', ORDER => 'ASC' });
    my @found;
    for my $it (grep { $TEXTS{ $_->Type } } @{ $all->ItemsArrayRef }) {
        my @files = grep { length } map { $_->Filename // '' } @{ $it->Attachments->ItemsArrayRef };
        my $said = $it->ContentObj ? $it->Content(Wrap => 0) : '';
        push @found, [minute($it->CreatedObj), $it->CreatorObj->Name, $said, @files] if length $said || @files;
    }
    return @found;
}

sub shown {
    my ($number) = @_;
    my $ticket = RT::Ticket->new(RT->SystemUser);
    $ticket->LoadById($number);
    my @texts = texts($ticket);
    my @people = ((map { "asked by $_" } names($ticket->Requestors)),
        map { "copy to $_" } names($ticket->Cc), names($ticket->AdminCc));
    printf "%s. %s\n    %s, %s, owner %s, level %s, filed %s, due %s\n", $number, $ticket->Subject // '',
        $ticket->QueueObj->Name, $ticket->Status, $ticket->OwnerObj->Name, $ticket->SLA || '-',
        minute($ticket->CreatedObj), minute($ticket->DueObj);
    printf "    %s; %d texts\n", join(', ', @people) || 'nobody asked', scalar @texts;
    return unless @texts;
    my ($when, $who, $said, @files) = @{ $texts[-1] };
    $said = join ' ', split ' ', $said;
    printf "    the last, %s, %s: %s\n", $when, $who, substr($said, 0, 100) . (@files ? " [@files]" : '');
    return;
}

shown($_) for @ARGV;
