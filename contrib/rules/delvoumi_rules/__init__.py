"""Rules that say which outcome of a call is a success, a failure, or is ignored, and their translation to BPF."""
