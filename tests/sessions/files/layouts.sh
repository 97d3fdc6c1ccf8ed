# Makes image layouts, for sessions.
artifact=application/vnd.oci.artifact.manifest.v1+json
manifest=application/vnd.oci.image.manifest.v1+json
index=application/vnd.oci.image.index.v1+json
config=application/vnd.oci.image.config.v1+json
docker=application/vnd.docker.distribution.manifest.v2+json
list=application/vnd.docker.distribution.manifest.list.v2+json
plain=application/vnd.oci.image.layer.v1.tar

# blob DIR TYPE TEXT: keeps a text of ASCII in a layout, and prints its descriptor
blob() {
    digest=$(printf %s "$3" | sha256sum | cut -d ' ' -f 1)
    mkdir -p "$1/blobs/sha256"
    printf %s "$3" > "$1/blobs/sha256/$digest"
    printf '{"mediaType":"%s","digest":"sha256:%s","size":%d}' "$2" "$digest" "${#3}"
}

# layout DIR MEMBERS: writes the files beside `blobs`; the members are those of the index but for its version
layout() {
    mkdir -p "$1/blobs"
    printf '{"imageLayoutVersion":"1.0.0"}' > "$1/oci-layout"
    printf '{"schemaVersion":2,%s}' "$2" > "$1/index.json"
}

# image DIR LAYERS CONFIG MANIFEST DESCRIPTOR: keeps an image in a layout, by the descriptors of its layers and its configuration, and prints its
# descriptor; the last two are more members of the manifest and of that descriptor, each behind a comma
image() {
    told=$(blob "$1" $config "$3")
    told=$(blob "$1" $manifest '{"schemaVersion":2,"mediaType":"'$manifest'","config":'"$told"',"layers":['"$2"']'"$4"'}')
    printf '%s%s}' "${told%\}}" "$5"
}

# short: cuts what standard input says short, by a word for each sum
short() {
    sed -E 's/[0-9a-f]{64}/HEX/g'
}

# saved NAME LAYERS: writes NAME.tar as `docker save` did before version 25, of config.json and the files one.tar, two.tar and old
saved() {
    hex=$(sha256sum config.json | cut -d ' ' -f 1)
    cp config.json "$hex.json"
    printf '[{"Config":"%s.json","RepoTags":["a:1"],"Layers":[%s]}]' "$hex" "$2" > manifest.json
    tar cf "$1.tar" manifest.json "$hex.json" one.tar two.tar old
}

# kept DIR TYPE FILE: keeps a file in a layout, and prints its descriptor
kept() {
    digest=$(sha256sum < "$3" | cut -d ' ' -f 1)
    mkdir -p "$1/blobs/sha256"
    cp "$3" "$1/blobs/sha256/$digest"
    printf '{"mediaType":"%s","digest":"sha256:%s","size":%d}' "$2" "$digest" "$(wc -c < "$3")"
}

# unpacked FILE..: prints a configuration of an image with the DiffIDs of these files
unpacked() {
    printf '{"architecture":"amd64","os":"linux","rootfs":{"type":"layers","diff_ids":['
    comma=
    for file; do
        printf '%s"sha256:%s"' "$comma" "$(sha256sum < "$file" | cut -d ' ' -f 1)"
        comma=,
    done
    printf ']}}'
}
