"""What .ci/serve.py runs: stories of clients and servers round the built gateway, over real sockets."""
import os
import sys

sys.path.insert(0, os.path.join(os.path.dirname(os.path.abspath(__file__)), "..", "..", "examples"))
