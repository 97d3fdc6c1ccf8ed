"""Documents that others wrote, and what others say of documents, for `tools/peers`.

  image_cases.py    the documents of image-spec's own schema tests, and of its texts' examples
  runtime_cases.py  the validation cases of runtime-tools
  written           what umoci, skopeo, buildah, podman, runc and crun write
  oracle.py         runtime-tools' validator over changed documents
  explained.py      why that validator and the rules differ
  changes.py        changes of documents, by a seed
  sentences.py      the sentences of the specifications' texts
  checker.py        what breaks rules, by the project's own programs
"""
