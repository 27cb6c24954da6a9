#!/usr/bin/perl
# Prints as JSON which users may see which tickets, as RT itself judges it: by right and by user's id
# the numbers of tickets. Merged tickets are left out, of which RT shows the other.
use strict;
use warnings;
use RT -init;
use JSON;

my $users = RT::Users->new(RT->SystemUser);
$users->FindAllRows;
$users->UnLimit;
my @principals = map { $_->PrincipalObj } grep { $_->id != RT->SystemUser->id && $_->id != RT->Nobody->id }
    @{ $users->ItemsArrayRef };
my $numbers = $RT::Handle->dbh->selectcol_arrayref(
    "SELECT id FROM Tickets WHERE Type = 'ticket' AND EffectiveId = id ORDER BY id");
my %seen;
for my $number (@$numbers) {
    my $ticket = RT::Ticket->new(RT->SystemUser);
    $ticket->Load($number);
    for my $principal (@principals) {
        for my $right (qw(ShowTicket ShowTicketComments)) {
            push @{ $seen{$right}{ $principal->id } }, $number
                if $principal->HasRight(Right => $right, Object => $ticket);
        }
    }
    RT::Principal->InvalidateACLCache if $number % 50 == 0;
}
print JSON->new->canonical->encode(\%seen), "\n";
