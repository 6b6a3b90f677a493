function $check($n){
  if($n % 3 === 0){
    throw[$n, "failed"];
  }
  return $n;
}
function $through($n){
  return $check($n) + 1;
}
function $start(){
  var $sum = 0;
  var $caught = 0;
  var $i = 0;
  while($i < 2000000){
    try{
      $sum = $sum + $through($i) | 0;
    }catch($catch){
      $caught = $caught + $catch[0] % 7;
    }
    $i = $i + 1;
  }
  $write(String($sum) + " " + String($caught));
}
$start();
