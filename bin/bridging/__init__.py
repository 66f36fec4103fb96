"""The modules of bin/bridge, which carries the packets of a coordinator over an MQTT broker.
docs/several-machines.md says what it does."""
