Content-Length: 83

{"jsonrpc": "2.0", "id": 1, "method": "initialize", "params": {"capabilities": {}}}Content-Length: 57

{"jsonrpc": "2.0", "method": "initialized", "params": {}}Content-Length: 339

{"jsonrpc": "2.0", "method": "textDocument/didOpen", "params": {"textDocument": {"uri": "file:///lost-alternative.g", "languageId": "pgw", "version": 1, "text": "# The choice stays with its first alternative once that has taken the l, so lambda is never read.\nstart keyword;\n\nkeyword = choice(string(\"let\"), string(\"lambda\"));\n"}}}Content-Length: 49

{"jsonrpc": "2.0", "id": 2, "method": "shutdown"}Content-Length: 36

{"jsonrpc": "2.0", "method": "exit"}