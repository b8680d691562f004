"""Lists of LXC, snapd, firejail and systemd as profiles. It uses what forms uses."""
