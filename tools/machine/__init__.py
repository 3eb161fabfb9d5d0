"""A machine's own stack as a scenario: reads what lsblk, dmsetup and /proc/mdstat say of its block devices."""
