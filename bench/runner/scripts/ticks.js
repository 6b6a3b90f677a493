function $add($x, $i){
  return $x + $i | 0;
}
function $start(){
  var $x = 0;
  var $i = 0;
  while($i < 50000000){
    $x = $add($x, $i);
    $i = $i + 1;
  }
  $write(String($x));
}
$start();
