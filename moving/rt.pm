# The lifecycles, levels and hours of the desk that make_rt.pl makes: one of each thing that is
# carried by another rule, or not at all.
Set(%ServiceAgreements, (
    QueueDefault => { 'Field Service' => { Level => 'Field', Timezone => 'Europe/Berlin' } },
    Levels => {
        standard => {
            Response   => { BusinessMinutes => 240 },
            KeepInLoop => { BusinessMinutes => 1200 },
            Resolve    => { BusinessMinutes => 2400 },
        },
        '4h' => { BusinessHours => 'Early shift', Response => { BusinessMinutes => 60 }, Resolve => 240 },
        Field => {
            Response   => { BusinessMinutes => 120, IgnoreOnStatuses => ['stalled'] },
            KeepInLoop => { RealMinutes => 2880 },
        },
        'At once' => { StartImmediately => 1, Response => { RealMinutes => 60 } },
        both      => { Response => { BusinessMinutes => 60, RealMinutes => 30 } },
        contract  => {
            Response   => { BusinessMinutes => 60 },
            OutOfHours => { Response => { RealMinutes => 120 } },
        },
    },
));
Set(%ServiceBusinessHours, (
    Default => { map { ($_ => { Name => "day $_", Start => '9:00', End => '18:00' }) } 1 .. 5 },
    'Early shift' => {
        (map { ($_ => {
            Name => "day $_", Start => '6:00', End => '15:00',
            Breaks => [{ Start => '11:00', End => '11:30' }],
        }) } 1 .. 6),
        holidays => ['12-25', '01-01', '2026-05-01'],
    },
));
Set(%Lifecycles,
    purchase => {
        initial     => ['requested'],
        active      => ['approved', 'on order'],
        inactive    => ['received', 'refused', 'deleted'],
        defaults    => { on_create => 'requested' },
        transitions => {
            ''         => ['requested', 'approved'],
            requested  => ['approved', 'refused', 'deleted'],
            approved   => ['on order', 'refused'],
            'on order' => ['received', 'refused'],
            received   => ['on order'],
            refused    => [],
            deleted    => [],
        },
        rights => {
            '* -> approved' => 'ApprovePurchase',
            '* -> deleted'  => 'DeleteTicket',
            '* -> *'        => 'ModifyTicket',
        },
    },
);
