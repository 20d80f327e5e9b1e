$c ( ) -> -. wff |- $.
$v ph ps ch $.
wph $f wff ph $.
wps $f wff ps $.
wch $f wff ch $.
wn $a wff -. ph $.
wi $a wff ( ph -> ps ) $.
${
  min $e |- ph $.
  maj $e |- ( ph -> ps ) $.
  ax-mp $a |- ps $.
$}
ax-1 $a |- ( ph -> ( ps -> ph ) ) $.
ax-2 $a |- ( ( ph -> ( ps -> ch ) ) -> ( ( ph -> ps ) -> ( ph -> ch ) ) ) $.
$c setvar class { } | = A. $.
$v x y A B $.
vx $f setvar x $.
vy $f setvar y $.
cA $f class A $.
cB $f class B $.
cv $a class x $.
cab $a class { x | ph } $.
wceq $a wff A = B $.
wal $a wff A. x ph $.
${
  a1i.1 $e |- ph $.
  a1i $a |- ( ps -> ph ) $.
$}
${
  a2i.1 $e |- ( ph -> ( ps -> ch ) ) $.
  a2i $a |- ( ( ph -> ps ) -> ( ph -> ch ) ) $.
$}
${
  $d x ph $.
  ax-5 $a |- ( ph -> A. x ph ) $.
$}
eqid $a |- A = A $.
${
  drop.1 $e |- ( ph -> A. x ph ) $.
  drop $a |- ( ph -> ph ) $.
$}
${
  pair.1 $e |- ph $.
  pair $a |- ( ph -> ph ) $.
$}
ax-1c $a |- ( ph -> ( ps -> ph ) ) $.
weqx $a wff x = y $.
eqv $a |- x = x $.
${
  sel.1 $e |- A = A $.
  sel $a |- { x | ph } = A $.
$}
