"""What the packages beside e1gw share: the records and files of sessions and their time, the laws and frames of speech,
lines with their configuration, packets of captures, words of faults, works of a service, and how a command begins. A
module here imports none of another package."""
