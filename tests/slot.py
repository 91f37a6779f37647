"""How long a slot takes, for tests and measurements: 104 bits at 1187.5 bit/s (IEC 62106)."""
NINETEEN_SLOTS = 1_664_000              # microseconds
SLOT = NINETEEN_SLOTS / 19e6            # seconds
